<?xml version="1.0" encoding="UTF-8"?>
<!-- The cadena original of an invoice: two bars, the values joined by bars, two bars. -->
<xsl:stylesheet version="1.0" xmlns:xsl="http://www.w3.org/1999/XSL/Transform" xmlns:cfdi="http://www.sat.gob.mx/cfd/4">
  <xsl:output method="text" encoding="UTF-8"/>

  <xsl:template match="/">
    <xsl:text>|</xsl:text>
    <xsl:apply-templates select="cfdi:Comprobante"/>
    <xsl:text>||</xsl:text>
  </xsl:template>

  <!-- A value that is present: a bar, and the value with its blanks normalized. -->
  <xsl:template match="@*">
    <xsl:text>|</xsl:text>
    <xsl:value-of select="normalize-space(.)"/>
  </xsl:template>

  <xsl:template match="cfdi:Comprobante">
    <xsl:apply-templates select="@Version"/>
    <xsl:apply-templates select="@Serie"/>
    <xsl:apply-templates select="@Folio"/>
    <xsl:apply-templates select="@Fecha"/>
    <xsl:apply-templates select="@FormaPago"/>
    <xsl:apply-templates select="@NoCertificado"/>
    <xsl:apply-templates select="@CondicionesDePago"/>
    <xsl:apply-templates select="@SubTotal"/>
    <xsl:apply-templates select="@Descuento"/>
    <xsl:apply-templates select="@Moneda"/>
    <xsl:apply-templates select="@TipoCambio"/>
    <xsl:apply-templates select="@Total"/>
    <xsl:apply-templates select="@TipoDeComprobante"/>
    <xsl:apply-templates select="@Exportacion"/>
    <xsl:apply-templates select="@MetodoPago"/>
    <xsl:apply-templates select="@LugarExpedicion"/>
    <xsl:apply-templates select="@Confirmacion"/>
    <xsl:apply-templates select="cfdi:Emisor"/>
    <xsl:apply-templates select="cfdi:Receptor"/>
    <xsl:apply-templates select="cfdi:Conceptos/cfdi:Concepto"/>
    <xsl:apply-templates select="cfdi:Impuestos"/>
  </xsl:template>

  <xsl:template match="cfdi:Emisor">
    <xsl:apply-templates select="@Rfc"/>
    <xsl:apply-templates select="@Nombre"/>
    <xsl:apply-templates select="@RegimenFiscal"/>
    <xsl:apply-templates select="@FacAtrAdquirente"/>
  </xsl:template>

  <xsl:template match="cfdi:Receptor">
    <xsl:apply-templates select="@Rfc"/>
    <xsl:apply-templates select="@Nombre"/>
    <xsl:apply-templates select="@DomicilioFiscalReceptor"/>
    <xsl:apply-templates select="@ResidenciaFiscal"/>
    <xsl:apply-templates select="@NumRegIdTrib"/>
    <xsl:apply-templates select="@RegimenFiscalReceptor"/>
    <xsl:apply-templates select="@UsoCFDI"/>
  </xsl:template>

  <xsl:template match="cfdi:Concepto">
    <xsl:apply-templates select="@ClaveProdServ"/>
    <xsl:apply-templates select="@NoIdentificacion"/>
    <xsl:apply-templates select="@Cantidad"/>
    <xsl:apply-templates select="@ClaveUnidad"/>
    <xsl:apply-templates select="@Unidad"/>
    <xsl:apply-templates select="@Descripcion"/>
    <xsl:apply-templates select="@ValorUnitario"/>
    <xsl:apply-templates select="@Importe"/>
    <xsl:apply-templates select="@Descuento"/>
    <xsl:apply-templates select="@ObjetoImp"/>
    <xsl:apply-templates select="cfdi:Impuestos/cfdi:Traslados/cfdi:Traslado"/>
    <xsl:apply-templates select="cfdi:Impuestos/cfdi:Retenciones/cfdi:Retencion"/>
  </xsl:template>

  <!-- The Retenciones and Traslados of the invoice each stand before their total. -->
  <xsl:template match="cfdi:Comprobante/cfdi:Impuestos">
    <xsl:apply-templates select="cfdi:Retenciones/cfdi:Retencion"/>
    <xsl:apply-templates select="@TotalImpuestosRetenidos"/>
    <xsl:apply-templates select="cfdi:Traslados/cfdi:Traslado"/>
    <xsl:apply-templates select="@TotalImpuestosTrasladados"/>
  </xsl:template>

  <!-- A Retencion of the invoice has only an Impuesto and an Importe; the order of the others is the same in both places. -->
  <xsl:template match="cfdi:Traslado | cfdi:Retencion">
    <xsl:apply-templates select="@Base"/>
    <xsl:apply-templates select="@Impuesto"/>
    <xsl:apply-templates select="@TipoFactor"/>
    <xsl:apply-templates select="@TasaOCuota"/>
    <xsl:apply-templates select="@Importe"/>
  </xsl:template>
</xsl:stylesheet>
